require ["fileinto", "include"];
if header :contains "subject" "tax" { fileinto "finance"; fileinto "finance/tax"; }
include :global "bills";
