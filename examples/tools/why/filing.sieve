require ["fileinto", "copy"];
if header :contains "subject" "invoice" {
    fileinto "finance";
} elsif anyof (header :matches "from" ["acme@*", "*@acme.example>"],
               exists ["x-acme", "x-order"]) {
    fileinto :copy "finance";
} elsif size :over 1K {
    discard;
} else {
    keep;
}
