#!/bin/sh
# durskafn: the proved program, which stands beside this. A file at its size limit is to be a write that fails, with a message.
# Only a signal that is ignored leaves it so, and std ignores SIGPIPE alone.
trap '' XFSZ
exec "${0%/*}/durskafn.bin" "$@"
