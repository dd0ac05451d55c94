#!/bin/sh
# node.sh NAME SEED COUNT: the node of resource NAME, between a broker and the field, in the folder where it runs.
# Another node's lines come by the topic plc/NAME/MAKER, each in hex digits; inlet says which of them are handed on.
name=$1
here=$(dirname "$0")
rm -f "in.$name"
mkfifo "in.$name"
exec 3<>"in.$name"
mosquitto_sub -F '%t %x' -q 1 -c -i "plc-$name" -t "plc/$name/#" $BROKER | "$here/inlet" >&3 &
"$here/driver" "$name" "$3" >&3 &
"${PLC:-plc}" node three.plant "$name" --state state --journal "$name.journal" <&3 | "$here/shim" "$2" | while read -r word to line; do
  if [ "$word" = SEND ]; then mosquitto_pub -q 1 -t "plc/$to/$name" -m "$line" $BROKER; else echo "$word $to $line"; fi
done
