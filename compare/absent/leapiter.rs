// Stands in for a file of the concurrent map that is not to be had. The single-threaded map uses nothing of it.
