#!/usr/bin/env bash
# test_completion.sh
#
# Asks the completion of bash, and of zsh if it is installed, for the next word after each front of each form of lte_cli
# and lte_tune, and after fronts of words. The forms are listed here a second time, as docs/FORMATS.md has them. If LTE_CLI
# or LTE_TUNE names a program, it has to accept each form (status 2 means refused arguments), so that the forms here are
# the program's. For the tools it asks for an option and for an option's value. Prints a line for each answer that
# differs, and a count; the status is 1 if one does.
set -u
shopt -s lastpipe
here=$(cd "$(dirname "$0")" && pwd)/completion
faults=0 asked=0
room=$(mktemp -d)
trap 'rm -rf "$room"' EXIT

ports() { # ports FRONT BACK..: the forms with each carrier or none, and each back
    local front=$1 middle back
    shift
    for middle in ' --ports 2' ' --ports 4' ' --prefix long' ''; do for back; do echo "$front$middle$back"; done; done
}

rated() { # rated < FORMS: each form with each rate, and without
    local form rate
    while read -r form; do
        for rate in 1.92 3.84 7.68 15.36 30.72; do echo "$form --rate $rate"; done
        echo "$form"
    done
}

receiver() {
    printf '%s\n' {hits,ids,'ids --deep'{' all',}}{' --json',}{' --format cu8',} | rated
    printf '%s\n' search{' --ports 2',' --ports 4',' --prefix long',' --all',' --cancel',}{' --json',}{' --format cu8',} |
        rated
    printf '%s\n' evidence{' --ports 2',' --ports 4',' --prefix long',' --all',}{' --json',}{' --format cu8',} | rated
    ports 'why 271' {' --json',''}{' --format cu8',''} | rated
    ports certify {' --format cu8',''} | rated
    echo check
    ports transmit {' --load 7',}
    ports 'make 7' ''
    printf '%s\n' help --help -h version --version -V
}

tuner() {
    printf '%s\n' tell{' --json',}{' --format cu8',} apply{,' -7'}{' --format cu8',} | rated
    printf '%s\n' help --help -h version --version -V
}

fronts() { # fronts < FORMS: each front of each form, without its last word and so on, once
    while read -r form; do
        while [ "$form" ]; do
            [[ $form == *' '* ]] && form=${form% *} || form=
            echo "$form"
        done
    done | awk '!seen[$0]++'
}

questions() { # questions < FORMS: lines FRONT|BEGIN: behind each front, also of words that begin somehow; and odd fronts
    fronts | while IFS= read -r front; do printf '%s\n' "$front|" "$front|-" "$front|--p" "$front|s"; done
    printf '%s|\n' 'hits --format cu8' 'search --json --ports' 'search --ports 3' 'make 07' 'why 504' 'why 07' \
        'apply 7.5' 'hits --rate' 'hits --rate 2' 'tell --rate 3.84' unknown
}

wanted() { # wanted FORMS < QUESTIONS: the words that may come next, in the forms' order, but no number of a recording
    awk -F '|' '
        FILENAME == "-" { forms[++count] = $0; next }
        {
            answer = ""; split("", seen)
            for (i = 1; i <= count; i++) {
                if ($1 != "" && index(forms[i], $1 " ") != 1) continue
                split($1 == "" ? forms[i] : substr(forms[i], length($1) + 2), words, " ")
                if (words[1] ~ /^-?[0-9]+$/ && $1 !~ /--ports$/) continue
                if (index(words[1], $2) == 1 && !seen[words[1]]++) answer = answer (answer == "" ? "" : " ") words[1]
            }
            print answer
        }' - "$room/questions" <<< "$1"
}

offered() { # offered PROGRAM WORD..: what bash offers for the last word
    COMP_WORDS=("$@") COMP_CWORD=$(($# - 1)) COMPREPLY=()
    "_$1"
    echo "${COMPREPLY[*]}"
}

# shellcheck disable=SC2317
by_bash() { # by_bash PROGRAM < QUESTIONS
    local front begin words
    while IFS='|' read -r front begin; do
        read -ra words <<< "$front"
        offered "$1" "${words[@]}" "$begin"
    done
}

# shellcheck disable=SC2016,SC2317
by_zsh() { # by_zsh PROGRAM < QUESTIONS
    zsh -fc 'compadd() { shift 3; print -r -- "${(@M)@:#${words[CURRENT]}*}" }
             ask() { source $file }
             file=$1
             while IFS="|" read -r front begin; do
                 words=($2 ${=front} "$begin") CURRENT=${#words}
                 ask
             done' zsh "$here/_$1" "$1"
}

compare() { # compare WHAT OFFERED WANTED
    asked=$((asked + 1))
    if [ "$2" != "$3" ]; then
        echo "$1: offered: $2; wanted: $3"
        faults=$((faults + 1))
    fi
}

ask_all() { # ask_all PROGRAM FORMS: compares each answer of each shell with what is wanted
    local shell front found right
    questions <<< "$2" > "$room/questions"
    wanted "$2" > "$room/wanted"
    for shell in "${shells[@]}"; do
        "by_$shell" "$1" < "$room/questions" > "$room/found"
        compare "$shell: $1: answers" "$(wc -l < "$room/found")" "$(wc -l < "$room/wanted")"
        paste -d '\t' "$room/questions" "$room/found" "$room/wanted" | tr '\t' '\001' |
            while IFS=$'\001' read -r front found right; do compare "$shell: $1 $front" "$found" "$right"; done
    done
}

takes() { # takes PROGRAM FORMS: the program itself refuses none of the forms' words
    local form words
    while read -r form; do
        read -ra words <<< "$form"
        "$1" "${words[@]}" < /dev/null > /dev/null 2>&1
        if [ $? = 2 ]; then
            echo "$1 refuses: $form"
            faults=$((faults + 1))
        fi
    done <<< "$2"
}

shells=(bash)
if command -v zsh > /dev/null; then shells+=(zsh); else echo 'left out: completion of zsh: no zsh (Debian: zsh)'; fi
tools=(lte_survey lte_picture lte_diff lte_compare lte_pcap lte_convert lte_check_certificate)
for name in lte_cli lte_tune "${tools[@]}"; do
    # shellcheck source=/dev/null
    source "$here/$name.bash"
done
ask_all lte_cli "$(receiver)"
ask_all lte_tune "$(tuner)"
compare 'bash: lte_survey --cs' "$(offered lte_survey a.cu8 --cs)" '--csv-windows --csv'
compare 'bash: lte_survey --form s' "$(offered lte_survey --form s)" 's8 s16 sigmf'
compare 'bash: lte_survey --rate' "$(offered lte_survey --rate '')" ''
compare 'bash: lte_pcap --ea' "$(offered lte_pcap --ea)" '--earfcn'
compare 'bash: lte_pcap --earfcn' "$(offered lte_pcap --earfcn '')" ''
compare 'bash: lte_convert u' "$(offered lte_convert --h)" '--help'
compare 'bash: lte_compare --as m' "$(offered lte_compare --as m)" 'matlab'
compare 'bash: lte_picture --tu' "$(offered lte_picture --tu)" '--tune'
if [ "${shells[1]-}" ]; then
    for name in "${tools[@]}"; do compare "zsh: _$name" "$(zsh -n "$here/_$name" 2>&1)" ''; done
fi
if [ -x "${LTE_CLI-}" ]; then takes "$LTE_CLI" "$(receiver)"; fi
if [ -x "${LTE_TUNE-}" ]; then takes "$LTE_TUNE" "$(tuner)"; fi
echo "completion: $asked answers, $faults faults"
exit $((faults > 0))
