require ["include", "fileinto"];
include :global "bills";
fileinto "finanze";
