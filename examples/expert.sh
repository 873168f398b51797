#!/bin/bash
# A client of `serve` for one expert: each line that is typed is sent, and its answer is printed. The line `quit` ends it.
#     examples/expert.sh 127.0.0.1 7000
# A third word is the expert's name, which a chair (examples/chair.py) is told first.
exec 3<>"/dev/tcp/$1/$2" || exit 1
show() { IFS= read -r answer <&3 && printf '%s\n' "$answer"; }
[ -z "$3" ] || printf 'name %s\n' "$3" >&3
show && show && show || exit 1 # exploration 1, expert E, attributes N
for ((name = ${answer#attributes }; name > 0; name--)); do show; done
while IFS= read -r line; do
    printf '%s\n' "$line" >&3
    show || break
    [ "$line" = quit ] && break
done
