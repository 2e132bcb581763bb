require "include";
include :global "five";
include :global "five";
include :global "five";
include :global "five";
include :global "five";
