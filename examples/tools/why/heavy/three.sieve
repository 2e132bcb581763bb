require "include";
include :global "four";
include :global "four";
include :global "four";
include :global "four";
include :global "four";
