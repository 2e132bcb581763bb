require "include";
include "eight";
