require "fileinto";
if header :contains "subject" "bill" { fileinto "finance"; }
