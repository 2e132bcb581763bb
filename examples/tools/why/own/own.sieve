require "include";
include :global "rules";
if not false {
    stop;
}
keep;
