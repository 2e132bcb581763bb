require "include";
if allof (true, anyof (false, true), false) {
    discard;
}
include :global "round";
