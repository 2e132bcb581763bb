require "include";
include :global "one";
include :global "one";
include :global "one";
include :global "one";
include :global "one";
