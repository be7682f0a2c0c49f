"""A read-only view of a drive's past as files:  python3 -m s4d.mount IMAGE DIR

`View` has the moments as folders, and needs no more than `s4`; `kernel` shows it to the kernel by FUSE.
"""
