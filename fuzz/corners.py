"""Hand-picked texts for the corners of the rules; the model judges them too."""
H = '.task A create=- targets=-\nA: '
def corners():
    c = []
    one = lambda s: c.append(H + s + '\nhalt\n')
    for s in ['addiu $8x,$8,1', 'addiu $8_,$8,1', '$', 'j @', 'j @0', 'j @00', 'j @0000000004096', 'j @4097', 'j @99999999999999999999999', 'j @0x1', 'j @-1', 'j @1_', 'j @1a', 'li $8,0x', 'li $8,0X1F', 'li $8,0x1G', 'li $8,1a', 'li $8,1_',
              'li $8,- 5', 'li $8,--5', 'li $8,-0', 'li $8,-00x1', 'li $8,00x1', 'li $8,0x00000000000000000001', 'li $8,' + '9' * 50, 'li $8,-2147483648', 'li $8,-2147483649', 'li $8,4294967295', 'li $8,4294967296', 'li $8,0x100000000', 'li $8,-0x80000000', 'li $8,-0x80000001',
              'li $8,18446744073709551617', 'li $8,-18446744073709551617', 'li $8,18446744073709551616', 'li $8,0x10000000000000001', 'j @18446744073709551616', 'addiu $8,$8,18446744073709551617', 'sll $8,$8,18446744073709551617', 'sll $8,$8,4294967297',
              'li $8,32767', 'li $8,32768', 'li $8,65535', 'li $8,65536', 'li $8,-32768', 'li $8,-32769', 'li $8,0xFFFF8000', 'li $8,0xFFFF7FFF', 'li $8,0xffff0000', 'li $0,5', 'li $0,5 !f', 'li $8,65536 !f !s', 'la $8,A', 'la $8,A !f', 'la $8,B', 'la $8,@3', 'la $8', 'la $0,A !f', 'la $8,A !s !f',
              'release', 'release -', 'release $0', 'release $8,$8', 'release $33,$8,$1', 'release $hi', 'release $8 !f', 'release $8 !s', 'release $8 !st', 'release $8,', 'release ,$8', 'release $8 $9',
              'nop !f', 'nop !s', 'nop !st', 'nop !q', 'nop !f !f', 'nop !s !s', 'nop !s !st', 'nop !f !q', 'nop $8', 'nop,', 'halt !s', 'halt !f', 'halt !st', 'halt $8', 'beq $8,$9,A !st', 'beq $8,$9,A !sn !f', 'beq $8,$9,A !f', 'beq $8,$9,A!s', 'j A !st', 'jr $8 !sn',
              'addiu !f $8,$8,1', 'addiu $8,!f $8,1', 'addiu $8,$8 !f,1', 'addiu $8,$8,!q,1', '!f', '!f addiu $8,$8,1', 'addiu $8,$8,99999 !q', 'addiu $8 !q', 'foo !q', 'foo $99', 'foo', 'addiu $8,$8,1 $9', 'addiu $8,$8,1,', 'addiu ,$8,$8,1', 'addiu $8 $8 1', 'addiu', 'ADDIU $8,$8,1', 'Addiu $8,$8,1',
              'addiu$8,$8,1!f!s', 'addiu $8,$8,1!f', 'addiu $8,$8,1 !f!s', 'addiu $8,$8,1 !fs', 'addiu $8,$8,1 !s!f', 'addiu $8,$8,1-1', 'addiu $8,$8-1', 'addiu $8,$8,-32768', 'addiu $8,$8,-32769', 'addiu $8,$8,32768', 'andi $8,$8,65535', 'andi $8,$8,65536', 'andi $8,$8,-1', 'andi $8,$8,-0', 'lui $8,65535', 'lui $8,65536', 'lui $8,-1',
              'sll $8,$8,31', 'sll $8,$8,32', 'sll $8,$8,-1', 'sll $8,$8,$9', 'sllv $8,$8,1', 'addu $8,$8,1', 'addiu $8,$8,$9', 'addiu $8,$8,A', 'lw $8,4($9)', 'lw $8,($9)', 'lw $8,4($9', 'lw $8,4 ( $9 )', 'lw $8,$9', 'lw $8,4($hi)', 'lw $hi,4($9)', 'lw $8,32768($9)', 'lw $8,-32768($9)', 'lw $8,99999($9) !q', 'lw $8,A($9)', 'lw $8,-4($9)', 'sw $8,- 4($9)',
              'mfhi $8', 'mfhi $hi', 'mfhi $0', 'mfhi $0 !f', 'mthi $8 !f', 'mtlo $8 !f', 'mthi $hi', 'mult $8,$9 !f', 'mult $hi,$9', 'mult $0,$0 !f', 'multu $8', 'li $32,1', 'li $lo,1', 'move $8,$9', 'move $8,$hi', 'move $0,$9 !f', 'out $hi', 'out $8', 'out 8', 'out $8 !f', 'out $8 !s', 'jr $31', 'jr $31 !s', 'jalr $8', 'jalr $8,$9', 'jalr $8,$9,$10', 'jalr', 'jalr $0,$9 !f', 'jalr $8 !f !s', 'jal A !f', 'jal @1', 'jal', 'j', 'j A,A', 'j $8', 'j 5', 'j halt', 'j A:', 'j .text',
              'beq $8,$9,@4096', 'beq $8,$9,5', 'beq $8,$9', 'blez $8,A', 'blez $8,$9,A', 'bltz $8,@2 !st', 'bgez $0,@0', 'subu $zero,$at,$v0', 'addu $v1,$a0,$a3', 'addu $t0,$t7,$s0', 'addu $s7,$t8,$t9', 'addu $k0,$k1,$gp', 'addu $sp,$fp,$ra', 'addu $s8,$8,$8', 'addu $t10,$8,$8', 'addu $a4,$8,$8', 'addu $00,$8,$8', 'addu $08,$8,$8', 'addu $34,$8,$8', 'addu $T0,$8,$8', 'addu $ 8,$8,$8', 'addu $-1,$8,$8', 'addu $_,$8,$8',
              '.word 1', '.byte 1', '.space 1', '.word', '.foo', '.taska', '.text', '.text 3', '.data', '.data 3 !f', '.data !f', '.rodata', '.start A', '.start', '.start A A', '.start @0', '.start $8', '.start A !f', '.start B', '.start A\n.start A', '.start A\n.start B', ':', 'A:', 'B:', 'B: B: nop', 'B : nop', 'B: C: D: nop', 'B nop', 'B: : nop', '5: nop', '@0: nop', 'nop nop', 'nop: nop', 'create: j create', 'j: j j', '# x', 'nop # x', 'nop#x', 'nop #\x7f', '\t nop \t', 'n' * 33, 'n' * 32 + ': nop', 'n' * 33 + ': nop', '_: nop', '_9: nop', '9_: nop',
              'add $8,$8,$8', 'sub $8,$8,$8', 'div $8,$8', 'syscall', 'b A', 'bal A', 'neg $8,$8', 'not $8,$8', 'or $8,$8,$8', 'nor $8,$8,$8', 'sltu $8,$8,$8', 'sltiu $8,$8,-1', '-', '=', '(', ')', ',', 'nop =', 'nop -', '.', '.1', '.A', '. text', '!', '! f', '!F', '*', '"', "'", ';', '%', '&', '\\', '~', '`', '[', ']', '{', '}', '|', '<', '>', '?', '/', '^', '+']:
        one(s)
        c.append(s); c.append(s + '\n')
        c.append('.task A create=- targets=-\nA: halt\n.data\n' + s + '\n')
        c.append('.task A create=- targets=-\nA: halt\n.rodata\nK: ' + s + '\nJ:\n.text\nla $8,J\nla $8,K\n')
        c.append(H + s + '\r\nhalt\r\n')
        c.append(H + s)
        c.append(H + s + '\r')
    for s in ['.word 1,2', '.word1,2', '.word 1 2', '.word 1,', '.word ,1', '.word -2147483648', '.word -2147483649', '.word 4294967295', '.word 4294967296', '.byte 255,-128', '.byte 256', '.byte -129', '.byte', '.space 0', '.space 1,1', '.space', '.space 65536', '.space 65537', '.space -1', '.space -0', '.word A', '.byte $8', '.word 1 !f', '.space 3 !s', '.space 99999 !f', '.word @1', 'nop', 'foo', 'addiu 99', '.word 1\n.byte 1\n.word 2', '.byte 1,2,3', '.byte 1,2,3,4', '.byte 1,2,3,4,5', '.space 4', '.space 5']:
        for sec in ('.data', '.rodata'):
            c.append('.task A create=- targets=-\nA: halt\n%s\nD: %s\nE:\n.text\nla $8,D\nla $9,E\nj D\n' % (sec, s))
            c.append('.task A create=- targets=-\nA: halt\n%s\nD: %s\nE:\n.text\nla $8,D\nla $9,E\n' % (sec, s))
            c.append('.task A create=- targets=-\nA: halt\n%s\n%s' % (sec, s))
    for s in ['.task A create=- targets=-', '.task A create=$8 targets=A', '.task A create=$8,$8,$9 targets=A,A', '.task A create=$hi,$32,$lo targets=@0,@1', '.task A create=$0 targets=-', '.task A create=$zero,$8 targets=-', '.task A create=-targets=-', '.taskA create=-targets=-', '.taskA create=$8targets=A', '.taskA create=$8 targets=@0', '.task A create= targets=-', '.task A create=- targets=', '.task A create=-', '.task A targets=- create=-', '.task A create=8 targets=-', '.task A create=$8, targets=-', '.task A create=,$8 targets=-', '.task A create=$8 $9 targets=-', '.task A create=-,$8 targets=-', '.task A create=-5 targets=-', '.task A create=- targets=-5', '.task A create=- targets=-,A', '.task A create=- targets=A,', '.task A create=- targets=A A', '.task A create=- targets=$8', '.task A create=- targets=5', '.task A create=- targets=@4096', '.task A create=- targets=@4097', '.task A create=- targets=@4097 !f', '.task A create=- targets=- !f', '.task A create=- targets=- !q', '.task A create=- targets=- 5', '.task A create = - targets = -', '.task A, create=- targets=-', '.task @0 create=- targets=-', '.task B create=- targets=-', '.task A create=- targets=B', '.task A create=- targets=D', '.task D create=- targets=-', '.task A Create=- targets=-', '.task create=- targets=-', '.task', '.task A', '.task A create targets', '.task A create=create targets=-', '.task A create=- targets=targets', '.task A create=- targets=targets=-', '.task A create=- targets=' + ','.join(['A'] * 16), '.task A create=- targets=' + ','.join(['A'] * 17), '.task A create=- targets=-\n.task A create=- targets=-', '.task A create=- targets=-\n.task C create=- targets=-', '.task C create=- targets=-', '.task A: create=- targets=-', 'L: .task A create=- targets=-']:
        c.append(s + '\nA: halt\nC:\n.data\nD: .word 7\n')
        c.append('A: C: halt\n.data\nD: .word 7\n' + s)
        c.append(s + '\n' + s + '\nA: halt\nB: nop\nC: halt\n')
        c.append(s + '\nA: C: halt\nB: nop\n')
        c.append(s + '\ncreate: targets: A: nop\nC: halt\nB: nop\n')
    z = '.task A create=- targets=-\nA: halt'
    for s in ['', '\n', '\r', '\r\n', ' ', '\t', '\n\n', '#', '# c', '# \xc3', '# \x00', '#\t~', '\x0b', '\x0c', '\x1f', '\x7e', '\x7f', '\x80', '\xff', 'A\rB', '\r\r\n', '\r \n', ' \r', 'x\r\r', '# \r\n', '# \r x\n', '#\r']:
        c += [s, z + s, z + '\n' + s, s + z, s + '\n' + z, z + '\n' + s + '\n']
    # orders of faults over lines
    f = {2: 'nop \x01', 3: 'nop $99', 4: 'foo', 5: 'nop $8', 6: 'li $8,99999999999', 7: 'nop !q', 8: 'A:', 9: 'j Q', 10: 'nop !f'}
    for a in f:
        for b in f:
            c.append('.task A create=- targets=-\nA: halt\n%s\n%s\n' % (f[a], f[b]))
            c.append('.task A create=- targets=-\n%s\nnop\n%s\nA: halt\n' % (f[a], f[b]))
            if b not in (2, 8): c.append('.task A create=- targets=-\nA: halt\n%s %s\n' % (f[a].replace('A:', 'A: '), f[b]))
    # sections and labels
    c += ['.data\nA: .word 1\n.text\nA: halt\n.task A create=- targets=-\n', '.task A create=- targets=-\n.data\nA: .word 1\n.text\nhalt\n', '.data\nX: .text\nA: halt\n.task A create=- targets=-\nla $8,X\nj X\n', 'X: .data\n.word 1\nY: .text\nA: halt\n.task A create=- targets=-\nla $8,X\nla $8,Y\nj X\n',
          '.data\nX: .rodata\nY: .data\nZ: .text\nA: la $8,X\nla $8,Y\nla $8,Z\nhalt\n.task A create=- targets=-\n', '.data\n.byte 1\n.text\nnop\n.data\n.byte 2\n.rodata\n.byte 3\n.data\n.byte 4\n.text\n.task A create=- targets=-\nA: halt\n.start A\n', '.data\n.task A create=- targets=A,@1\n.start A\n.text\nA: j B\nB: halt\n',
          '.start B\n.task A create=- targets=-\nA: nop\nB: halt\n', '.task B create=- targets=-\nA: nop\nB: halt\n', '.start B\n.task B create=- targets=-\n.task A create=- targets=-\nA: nop\nB: halt\n', '.start D\n.task A create=- targets=-\nA: halt\n.data\nD: .word 1\n', '.task A create=- targets=-\n.task B create=- targets=-\nA: B: halt\n', '.task A create=- targets=-\nnop\nA:\n', '.task A create=$0 targets=-\n.task B create=- targets=-\nA: B: halt !s\n', '.start B\n.task A create=- targets=-\nA: halt !s\nB: nop\n',
          '.start B\n.task A create=$0 targets=-\nA: halt !s\nB: nop\n', '.start B\nB: A: nop !f\n', '.task A create=- targets=-\nA: nop\nC:\n.task C create=- targets=-\n', '.task C create=- targets=-\n.task A create=$0 targets=-\nA: nop\nC:\n']
    return c
def large():
    n = lambda k: ''.join('.task T%d create=- targets=-\n' % i for i in range(k)) + ''.join('T%d: nop\n' % i for i in range(k))
    z = '.task A create=- targets=-\nA: '
    yield 'tasks 1024', n(1024)
    yield 'tasks 1025', n(1025)
    yield 'code 4096', z + 'nop\n' * 4096
    yield 'code 4097', z + 'nop\n' * 4097
    yield 'code 4097 label', z + 'nop\n' * 4097 + 'E: j E\nj E\n'
    yield 'code 70000', z + 'nop\n' * 70000 + 'E: j E\nla $8,E\n'
    yield 'code 70000 unknown', z + 'nop\n' * 70000 + 'E: j E\nj F\n'
    yield 'code 70000 duplicate', z + 'nop\n' * 70000 + 'A: nop\n'
    for s in ('.data', '.rodata'):
        yield s + ' 65536', z + 'halt\n' + s + '\n.space 65536\n'
        yield s + ' 65537', z + 'halt\n' + s + '\n.space 65536\n.byte 0\n'
        yield s + ' many', z + 'halt\n' + s + '\n' + '.space 65536\n' * 70000 + 'E:\n.text\nla $8,E\n'
        yield s + ' many unknown', z + 'halt\n' + s + '\n' + '.space 65536\n' * 70000 + 'E:\n.text\nla $8,F\n'
        yield s + ' 4GiB exactly', z + 'halt\n' + s + '\n' + '.space 65536\n' * 65536 + 'E: .text\nla $8,E\n'
    yield 'length 4194304', z + 'halt\n' + '#' * (4194304 - len(z) - 5)
    yield 'length 4194305', z + 'halt\n' + '#' * (4194305 - len(z) - 5)
    yield 'length 4194305 bad', '\x01' * 4194305
    yield 'labels', ''.join('L%d:\n' % i for i in range(300000)) + 'halt\n.task L7 create=- targets=L9,L10\n'
    yield 'labels dup', ''.join('L%d:\n' % i for i in range(300000)) + 'L5: halt\n.task L7 create=- targets=L9,L10\n'
    yield 'one line of labels', ''.join('L%d:' % i for i in range(200000)) + 'halt\n.task L7 create=- targets=L9,L10\n'
    yield 'one long number', z + 'li $8,' + '0' * 1000000 + '7\nhalt\n'
    yield 'one long hex number', z + 'li $8,0x' + '0' * 1000000 + 'f\nhalt\n'
    yield 'a long big number', z + 'li $8,' + '9' * 1000000 + '\nhalt\n'
    yield 'one long word line', z + 'halt\n.data\n.byte ' + ','.join(['7'] * 65536) + '\n'
    yield 'too long word line', z + 'halt\n.data\n.word ' + ','.join(['7'] * 300000) + '\n'
    yield 'long create', '.task A create=' + ','.join('$%d' % (i % 33 + 1) for i in range(300000)) + ' targets=-\nA: halt\n'
    yield 'long targets', '.task A create=- targets=' + ','.join(['A'] * 300000) + '\nA: halt\n'
    yield 'long release', z + 'release ' + ','.join('$%d' % (i % 33 + 1) for i in range(300000)) + '\n'
    yield 'many marks', z + 'nop' + ' !q' * 300000 + '\n'
    yield 'long name', z + 'n' * 1000000 + ':\nhalt\n'
    yield 'many lines', '\n' * 4000000 + z + 'halt\n'
    yield 'many lines fault', '\n' * 4000000 + z + 'foo\n'
    yield 'tabs', '\t' * 4000000 + z + 'halt\n'
