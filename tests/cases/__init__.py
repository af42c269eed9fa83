# The replayed frame files, one module for each part of document 01's table.
