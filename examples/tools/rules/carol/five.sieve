require "include";
include "six";
