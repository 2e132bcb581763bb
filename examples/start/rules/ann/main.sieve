require "fileinto";
if header :contains "subject" "invoice" {
    fileinto "finance";
} elsif exists "list-id" {
    fileinto "general";
}
