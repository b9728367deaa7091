# Sourced. `best`: the least nanoseconds that a command takes in as many rounds as `rounds` says then.
best() {
    least=
    for _ in $(seq "$rounds"); do
        begin=$(date +%s%N)
        "$@" > /dev/null
        end=$(date +%s%N)
        if [ -z "$least" ] || [ $((end - begin)) -lt "$least" ]; then least=$((end - begin)); fi
    done
    echo "$least"
}
