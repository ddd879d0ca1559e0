# Receive markers, which read their sources; one that is reserved is [].

story a marker that is reserved is [], and the others change nothing
load markers.S = versions 1 0
spawn markers:reserved [{a,b}] = pid 1
steps 1 100 = 3 ended normal []
spawn markers:cleared [{a,b}] = pid 2
steps 2 100 = 9 ended normal []
spawn markers:used [{a,b}] = pid 3
steps 3 100 = 5 ended normal {a,b}

story a search that uses a marker begins at the first message
load markers.S = versions 1 0
spawn markers:received [] = pid 1
send 1 first = done
deliver 1 = done
send 1 second = done
deliver 1 = done
steps 1 100 = 10 ended normal first

story a search that uses a marker waits where there is no message
load markers.S = versions 1 0
spawn markers:received [] = pid 1
steps 1 100 = 7 waits
send 1 late = done
deliver 1 = done
steps 1 100 = 5 ended normal late

story a search for a reference passes over the messages of before, which stay
load refs.S = versions 1 0
spawn refs:asks [] = pid 1
steps 1 100 = 7 waits
send 1 {a,b} = done
deliver 1 = done
steps 1 100 = 16 waits
deliver 1 = done
steps 1 100 = 11 ended normal {{#Ref<0.0.0.1>,reply},{a,b}}
