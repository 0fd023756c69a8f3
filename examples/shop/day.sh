#!/bin/sh
# A day of the brochure, by files: a master and two workers, and each message a file that is handed
# on. Give it the program, and a folder for the files:
#     examples/shop/day.sh crates/jdf_cli/out/jdf_cli /tmp/shop
# It prints the reply to each order and each message, and at the end the ticket that the master
# shows: the same lines as `jdf_cli world < examples/shop.json`, where the numbers of messages stand
# behind them.
set -eu
jdf=$(realpath "$1")
shop=$(realpath "$(dirname "$0")")
mkdir -p "$2"
cd "$2"

# order CONTROLLER TIME ORDER [MESSAGE]: the message that goes out is put into a file.
order() {
    printf '%s' "$3" | "$jdf" order "$1" --at "$2" > lines || [ $? = 1 ]
    head -n 1 lines
    if [ $# = 4 ]; then sed -n 2p lines > "$4"; fi
}

# take CONTROLLER TIME MESSAGE ANSWER: the answer is put into a file.
take() {
    "$jdf" take "$1" --at "$2" < "$3" > lines || [ $? = 1 ]
    head -n 1 lines
    sed -n 2p lines > "$4"
}

for name in mis press bindery; do "$jdf" new "$name" < "$shop/$name.json"; done

# The cover and the text go to the press. The message of the text is lost, and is sent once more.
order mis 1782806400 '{"Order":"Spawn","Node":"cover","Worker":"press","RW":["cover.sheets"]}' cover
order mis 1782806460 '{"Order":"Spawn","Node":"text","Worker":"press","RW":["text.sections"]}'
order mis 1782806520 '{"Order":"Resend","SpawnID":"S2"}' text

# The press takes both. That of the cover comes twice.
take press 1782806580 cover answer
take press 1782806640 text answer
take press 1782806700 cover answer

# What is out is the press's to change, and not the master's.
order mis 1782806760 '{"Order":"Edit","Edit":{"Edit":"SetStatus","Node":"cover.print","Status":"InProgress"}}'
order press 1782806820 '{"Order":"Edit","SpawnID":"S1","Edit":{"Edit":"SetStatus","Node":"cover.print","Status":"Completed"}}'
order press 1782806880 '{"Order":"Edit","SpawnID":"S1","Edit":{"Edit":"SetResStatus","Resource":"cover.sheets","Status":"Available"}}'
order press 1782806940 '{"Order":"Finish","SpawnID":"S1","Status":"Completed"}' return

# The cover comes back, and comes once more.
take mis 1782807120 return answer
take mis 1782807180 return answer

# The text is still out, so that its sections can't go to the bindery to be changed there.
order mis 1782807240 '{"Order":"Spawn","Node":"finish","Worker":"bindery","RW":["brochures","text.sections"]}'
order mis 1782807300 '{"Order":"Spawn","Node":"finish","Worker":"bindery","RW":["brochures"]}' finish

"$jdf" show mis
