"""What a client may send and take, each by name. Times are in seconds."""

HEAD_BYTES = 16_384  # of a request's first line and headers
EMPTY_BYTES = 64  # of empty lines before it, or after the last chunk of a body
HEAD_SECONDS = 20.0  # that a head may take once its first byte has come
IDLE_SECONDS = 60.0  # that a connection may be without a request
BODY_SECONDS = 60.0  # that a body, or an answer's, may take, and a second more for each LEAST_RATE bytes of it
LEAST_RATE = 4_096
DRAINED_BYTES = 65_536  # of a body that nobody wants, so that the connection can go on
LINGER_SECONDS = 1.0  # that what a client still sends is taken after an answer that ends the connection
CHUNK_LINE_BYTES = 4_096  # of a line between the chunks of a body
XML_BYTES = 2_097_152  # of a body that isn't an object's
XML_TAGS = 100_000  # in it: 10,000 parts have 80,000, and nobody else is answered while it is taken apart
OBJECT_BYTES = 64 * 1_048_576  # of an object
CONNECTIONS = 256  # at once; where one more comes the one goes that has been without a request for longest
KEY_REQUESTS = 64  # of one access key that are worked on, or whose answers are taken, at once
LOGGED_PATH = 1_100  # characters of a path in the access log: a bucket and a key, and who hasn't signed writes no more
METADATA_BYTES = 2_048  # of the names and values of x-amz-meta-
PAGE = 1_000  # entries of a list, and keys of a multi-delete
DELETES = 8  # keys of a multi-delete that are deleted at once, so that others are answered meanwhile
PIECE_BYTES = 65_536  # that are taken from a connection, or given to it, at once
