"""Which definitions stand under a contract: read from the names that it cites, and theirs in turn."""
