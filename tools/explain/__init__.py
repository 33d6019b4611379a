"""Makes words and pictures of the records of `bpfspec facts` and of the text that they were made from."""
