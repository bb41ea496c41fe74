"""The live page: a feed of calls or messages, followed by the proved month of the library and shown in a browser."""
