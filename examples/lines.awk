# An example as lines of the protocol: a line that begins with a blank goes on with the call before it, '#' begins a comment.
{ sub(/#.*/, ""); sub(/[ \t]+$/, "") }
/^$/ { next }
/^[ \t]/ { gsub(/[ \t]/, ""); bytes = bytes $0; next }
{ say(); call = $0; bytes = "" }
END { say() }
function say() { if (call != "") print bytes == "" ? call : call " " bytes }
