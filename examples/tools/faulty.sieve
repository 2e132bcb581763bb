require ["fileinto", "vacation"];
if header :contain "subject" "invoice" {
    filinto "finance";
}
if headr "subject" "lunch" { keep; }
fileinto :copy "lunch"
keep;
