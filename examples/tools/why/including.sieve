require ["include", "fileinto"];
include :once "including";
include :optional "nowhere";
include :global :once "rules";
include :global :once "rules";
include :global "rules";
include "own";
keep;
