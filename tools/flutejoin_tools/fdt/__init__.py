"""FDT Instances, as documents and as descriptions of files."""
