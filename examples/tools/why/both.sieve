require ["fileinto", "copy"];
fileinto :copy "finance";
fileinto "finance";
discard;
keep;
