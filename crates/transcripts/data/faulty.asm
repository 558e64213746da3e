exit
mov64 r11, 0
frob
