require "include";
include "seven";
