#!/bin/sh
# Walks a job of this folder: walk.sh NAME [ORDER] [trace]. The images are written from their hexadecimal texts first.
# It ends as `mcexec walk` does, and with 125 where it can't walk.
set -u
cd "$(dirname "$0")" || exit 125
if [ $# -eq 0 ] || [ ! -f "${1%.job}.job" ]; then
    [ $# -eq 0 ] || echo "walk.sh: there is no job $1 here" >&2
    echo "usage: walk.sh NAME [ORDER] [trace], where NAME is one of:" *.job >&2
    exit 125
fi
job=${1%.job}.job
shift
./write_images.sh || exit
exec ../mcexec walk "$job" "$@"
