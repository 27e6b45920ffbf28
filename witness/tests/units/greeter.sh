# Greets once a second, by itself and by a program that it starts.
mkdir -p /tmp/greeter
while :; do
    read -r name < /etc/hostname
    echo "hello $name" > /tmp/greeter/greeting
    /bin/cat /etc/passwd
    sleep 1
done
