require "include";
include "four";
