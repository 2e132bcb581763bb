require "include";
keep;

if header :contains "subject" "invoice" {
    fileinto "finance";
}
