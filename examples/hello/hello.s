# Prints Hi on the console, and returns 0.
start:  ld   a0, 64(a1)             # ConOut of the system table
        la   a1, message
        ld   t0, 8(a0)              # its OutputString
        addi sp, sp, -16
        sd   ra, 8(sp)
        jalr ra, 0(t0)
        ld   ra, 8(sp)
        addi sp, sp, 16
        li   a0, 0
        ret
message: .ascii16 "Hi"
