"""An S3 gateway over a store: the requests of clients that everybody has, answered from its buckets, keys and versions."""
