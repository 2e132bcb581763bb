require ["fileinto", "copy"];
if header :contains ["subject", "subject:"] "bill" {
    fileinto :copy "taxes";
}
