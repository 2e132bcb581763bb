require "include";
include :global "two";
include :global "two";
include :global "two";
include :global "two";
include :global "two";
