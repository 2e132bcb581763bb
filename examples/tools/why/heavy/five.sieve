require "include";
include :global "six";
include :global "six";
include :global "six";
include :global "six";
include :global "six";
