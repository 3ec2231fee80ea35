; A DOS program that speaks IPX for tests/system/ipxnet/players, as `nasm -f bin` assembles it: it does what the file CMD says,
; and keeps what comes to its socket, 4001, in the file GOT.
;
; CMD is 's', the destination's network, node and socket, a packet type and a body: it is sent; or 'q': the program ends. When
; it is done, CMD is gone. GOT has each packet, header and body, as it came. OWN, which is there from when it listens, has its
; network and node, as the driver tells them. Status 1 where there is no IPX.
        cpu 8086
        org 100h
SOCKET  equ 0140h               ; 4001, high byte first
HEADER  equ 30
LISTENS equ 12                  ; so many packets may come between two turns
ROOM    equ 600                 ; of each
; An event control block: what of it is used, and its size
ESR     equ 4
IN_USE  equ 8
ON      equ 10
STATION equ 28
PARTS   equ 34
PART    equ 36
SIZE    equ 40
ECB     equ 42

start:  mov ax, 7a00h           ; where the driver is
        int 2fh
        cmp al, 0ffh
        jne failed
        mov [driver], di
        mov [driver + 2], es
        push ds
        pop es
        mov bx, 1               ; close the socket, in case that it is open
        call of_socket
        mov bx, 0               ; open it
        call of_socket
        or al, al
        jnz failed
        mov cx, LISTENS
        mov si, listens
        mov di, packets
.next:  call listen
        add si, ECB
        add di, ROOM
        loop .next
        mov bx, 9               ; its own network and node
        mov si, own
        call far [driver]
        mov dx, own_file
        mov cx, 10
        mov si, own
        call append
turn:   sti
        hlt
        call look
        call obey
        jmp turn

failed: mov ax, 4c01h
        int 21h

of_socket:
        mov al, 0ffh            ; it stays until it is closed
        mov dx, SOCKET
        call far [driver]
        ret

; Listens by the block at si, with room at di
listen: mov word [si + ESR], 0
        mov word [si + ESR + 2], 0
        mov word [si + ON], SOCKET
        mov word [si + PARTS], 1
        mov [si + PART], di
        mov [si + PART + 2], ds
        mov word [si + SIZE], ROOM
        push cx
        push si
        push di
        mov bx, 4
        call far [driver]
        pop di
        pop si
        pop cx
        ret

; Keeps what came
look:   mov cx, LISTENS
        mov si, listens
        mov di, packets
.next:  cmp byte [si + IN_USE], 0
        jne .none
        push cx
        push si
        mov cx, [di + 2]        ; its length
        xchg cl, ch
        mov si, di
        mov dx, got_file
        call append
        pop si
        pop cx
        call listen
.none:  add si, ECB
        add di, ROOM
        loop .next
        ret

; Writes cx bytes at si behind those of the file of the name at dx
append: push si
        push di
        push cx
        mov di, dx
        mov ax, 3d01h           ; open it, else make it
        int 21h
        jnc .open
        mov dx, di
        xor cx, cx
        mov ah, 3ch
        int 21h
.open:  mov bx, ax
        xor cx, cx
        xor dx, dx
        mov ax, 4202h           ; go to its end
        int 21h
        pop cx
        mov dx, si
        mov ah, 40h
        int 21h
        mov ah, 3eh
        int 21h
        pop di
        pop si
        ret

; Does what the file CMD says, if there is one
obey:   mov dx, command_file
        mov ax, 3d00h
        int 21h
        jc .none
        mov bx, ax
        mov dx, command
        mov cx, ROOM
        mov ah, 3fh
        int 21h
        push ax                 ; its size
        mov ah, 3eh
        int 21h
        pop cx
        cmp byte [command], 's'
        jne .ended
        call send
        mov dx, command_file
        mov ah, 41h
        int 21h
.none:  ret
.ended: mov bx, 1
        call of_socket
        mov dx, own_file
        mov ah, 41h
        int 21h
        mov dx, command_file
        mov ah, 41h
        int 21h
        mov ax, 4c00h
        int 21h

; Sends what the command of cx bytes says
send:   sub cx, 14              ; a letter, twelve bytes of address, a type
        push cx
        mov si, command + 1
        mov di, sent + 6
        mov cx, 12
        rep movsb
        lodsb
        mov [sent + 5], al
        pop cx
        mov ax, cx
        add ax, HEADER
        mov [sending + SIZE], ax
        mov di, sent + HEADER
        rep movsb
        mov si, sent + 10       ; the node is the station
        mov di, sending + STATION
        mov cx, 6
        rep movsb
        mov word [sending + ESR], 0
        mov word [sending + ESR + 2], 0
        mov word [sending + ON], SOCKET
        mov word [sending + PARTS], 1
        mov word [sending + PART], sent
        mov [sending + PART + 2], ds
        mov si, sending
        mov bx, 3
        call far [driver]
.waits: cmp byte [sending + IN_USE], 0
        jne .waits
        ret

own_file        db 'OWN', 0
got_file        db 'GOT', 0
command_file    db 'CMD', 0

section .bss
driver:         resd 1
own:            resb 10
command:        resb ROOM
sending:        resb ECB
sent:           resb HEADER + ROOM
listens:        resb LISTENS * ECB
packets:        resb LISTENS * ROOM
