require "include";
include "nine";
