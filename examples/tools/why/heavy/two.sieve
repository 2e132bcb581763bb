require "include";
include :global "three";
include :global "three";
include :global "three";
include :global "three";
include :global "three";
