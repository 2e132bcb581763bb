require ["include"];
include :global "invoices";
