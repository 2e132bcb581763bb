require "include"; include "a";
