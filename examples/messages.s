# Messages with tags: every rank sends two messages to the next rank, the last rank to rank 0. One is a number, the
# sender's rank, and the other a text. Even ranks send the text first and odd ranks the number, so it is by the tags that a
# receiver tells them apart.
#
#   superstep 0   every rank sets the size of a tag to 4 bytes
#   superstep 1   every rank sends its two messages
#   superstep 2   every rank takes its messages out of its queue, and writes a line of what they say

    li    a7, 3             # pid()
    ecall
    mv    s0, a0            # s0: this rank
    li    a7, 2             # nprocs()
    ecall
    addi  s1, s0, 1
    remu  s1, s1, a0        # s1: the next rank
    andi  s2, s0, 1         # s2: 1 for an odd rank, 0 for an even one

# Superstep 0. A tag size, like an area, is in effect from the next superstep on, and every rank sets the same one.
    la    a0, tag_size
    li    a7, 11            # set_tagsize(tag_size)
    ecall
    li    a7, 4             # sync()
    ecall

# Superstep 1.
    bnez  s2, odd
    call  send_text
    call  send_number
    j     sent
odd:
    call  send_number
    call  send_text
sent:
    li    a7, 4             # sync()
    ecall

# Superstep 2. The queue is read from its front.
    la    a0, packets
    la    a1, bytes
    li    a7, 13            # qsize(packets, bytes)
    ecall
receive:
    la    a0, length
    la    a1, tag
    li    a7, 14            # get_tag(length, tag), of the first message that is left
    ecall
    lw    s3, 0(a0)         # s3: the bytes of its payload
    lw    t0, 0(a1)         # t0: its tag
    li    t1, -1
    beq   s3, t1, received  # no message is left
    la    t1, number_tag
    lw    t1, 0(t1)
    beq   t0, t1, number
    la    a0, text          # a text
    mv    a1, s3
    li    a7, 15            # move(text, its bytes): this takes the message out of the queue
    ecall
    mv    s4, s3            # s4: the bytes of the text
    j     receive
number:
    la    a0, sender
    li    a1, 4
    li    a7, 15            # move(sender, 4)
    ecall
    j     receive
# The line, such as "1: 2 messages of 9 bytes: 0 says hello".
received:
    mv    a0, s0
    call  write_number
    la    a0, colon
    li    a1, 2
    li    a7, 17            # write(a0, a1)
    ecall
    la    a0, packets
    lw    a0, 0(a0)
    call  write_number
    la    a0, messages_of
    li    a1, 13
    li    a7, 17
    ecall
    la    a0, bytes
    lw    a0, 0(a0)
    call  write_number
    la    a0, bytes_colon
    li    a1, 8
    li    a7, 17
    ecall
    la    a0, sender
    lw    a0, 0(a0)
    call  write_number
    la    a0, says
    li    a1, 6
    li    a7, 17
    ecall
    la    a0, text
    mv    a1, s4
    li    a7, 17
    ecall
    la    a0, newline
    li    a1, 1
    li    a7, 17
    ecall
    li    a7, 1             # end()
    ecall

# Sends this rank's number to the next rank.
send_number:
    la    a2, rank
    sw    s0, 0(a2)
    mv    a0, s1
    la    a1, number_tag
    li    a3, 4
    li    a7, 12            # send(next rank, number_tag, rank, 4)
    ecall
    ret

# Sends a text to the next rank: one of even ranks, and a longer one of odd ranks.
send_text:
    la    a2, hello
    li    a3, 5
    beqz  s2, chosen
    la    a2, good_morning
    li    a3, 12
chosen:
    mv    a0, s1
    la    a1, text_tag
    li    a7, 12            # send(next rank, text_tag, a2, a3)
    ecall
    ret

# Writes a0 in decimal. The digits come from the last one on, so they are stored downwards.
write_number:
    la    t0, digits_end
    li    t1, 10
digit:
    remu  t2, a0, t1
    divu  a0, a0, t1
    addi  t2, t2, 48        # '0'
    addi  t0, t0, -1
    sb    t2, 0(t0)
    bnez  a0, digit
    mv    a0, t0
    la    a1, digits_end
    sub   a1, a1, t0
    li    a7, 17            # write(a0, a1)
    ecall
    ret

tag_size:
    .word 4
number_tag:
    .word 1
text_tag:
    .word 2
rank:                       # what is sent
    .word 0
packets:                    # what qsize stores
    .word 0
bytes:
    .word 0
length:                     # what get_tag stores
    .word 0
tag:
    .word 0
sender:                     # what is received
    .word 0
text:
    .space 12
    .space 12               # room for the digits of a number
digits_end:
hello:
    .ascii "hello"
good_morning:
    .ascii "good morning"
colon:
    .ascii ": "
messages_of:
    .ascii " messages of "
bytes_colon:
    .ascii " bytes: "
says:
    .ascii " says "
newline:
    .ascii "\n"
