// The files of a block, as simulators take them.
+incdir+parts+.  +define+WIDE   // both of them
# The block itself.
listed.v
