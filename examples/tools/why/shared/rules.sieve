require ["include", "fileinto", "copy"];
if true {
    fileinto :copy "finance";
    return;
}
discard;
