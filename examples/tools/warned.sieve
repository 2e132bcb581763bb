require ["fileinto", "include"];
include :global "invoices";
include :global "nowhere";
include :global :optional "nowhere";
fileinto "taxes";
