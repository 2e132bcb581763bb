require "include";
include "three";
