# greatest common divisor, by remainders
    .text
main:
    li   a0, 48
    li   a1, 36
gcd:
    beqz a1, end
    rem  t0, a0, a1
    mv   a0, a1
    mv   a1, t0
    j    gcd
end:
    li   a7, 1
    ecall
    li   a7, 10
    ecall
