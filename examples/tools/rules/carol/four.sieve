require "include";
include "five";
