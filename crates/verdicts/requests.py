#!/usr/bin/env python3
"""The requests that the program verdicts reads, and what it has to write.

  requests.py FOLDER           writes FOLDER/stdin (each request after its length in two octets), and the requests to
                               standard output, a line of hexadecimal digits each
  requests.py --plan < LINES   turns the lines of the second reader into what a plan keeps: without the F-SEID's addresses and a
                               set deletion's FQ-CSIDs, and an element 129 at the end; FOLDER/stdout holds the result
"""
import re
import struct
import sys


def plan(line):
    line = re.sub(r" v4=\S+ v6=\S+", "", line)
    line = re.sub(r"[A-F]", lambda m: m.group(0).lower(), line)
    if line.startswith(("read deletion", "read set-deletion")):
        line = line.split(" | ")[0]
    if "update-endpoint" in line:
        line = line.replace(" | update-endpoint", "") + " | update-endpoint"
    return line


if sys.argv[1] == "--plan":
    for line in sys.stdin.read().splitlines():
        print(plan(line))
    sys.exit()

def ie(t,v): return struct.pack('>HH',t,len(v))+v
def hdr(kind,body,first=0x21,seid=1,seq=1,length=None):
    n=12+len(body) if length is None else length
    return bytes([first,kind])+struct.pack('>H',n&0xffff)+struct.pack('>Q',seid)+struct.pack('>I',seq)[1:]+b'\0'+body
H=bytes.fromhex
u16=lambda n: struct.pack('>H',n)
u32=lambda n: struct.pack('>I',n)
u64=lambda n: struct.pack('>Q',n)
pid=lambda n: ie(56,u16(n)); prec=lambda n: ie(29,u32(n)); far=lambda n: ie(108,u32(n))
src=lambda n: ie(20,bytes([n])); eid=lambda n: ie(131,bytes([n])); ft=lambda h: ie(21,H(h))
def pdi(*m): return ie(2,b''.join(m))
def cpdr(*m): return ie(1,b''.join(m))
def upd(*m): return ie(9,b''.join(m))
def rem(*m): return ie(15,b''.join(m))
def cep(*m): return ie(127,b''.join(m))
def rep(*m): return ie(130,b''.join(m))
fs=ie(57,H('02')+u64(7)+H('C0000201'))
good=cpdr(pid(1),prec(10),pdi(src(0),ft('05')))
msgs=[]
def add(m): msgs.append(m)
def est(*b,**k): add(hdr(50,b''.join(b),**k))
def mod(*b,**k): add(hdr(52,b''.join(b),**k))
def dele(*b,**k): add(hdr(54,b''.join(b),**k))
def sets(*b,first=0x20,seq=1,length=None):
    body=b''.join(b); n=4+len(body) if length is None else length
    add(bytes([first,14])+u16(n&0xffff)+u32(seq)[1:]+b'\0'+body)
# header: outcomes
add(b''); add(H('21')); add(hdr(50,b'')[:15]); est(); mod(); dele()
for first in (0x01,0x41,0x20,0x25,0x2F,0x3B,0xA1,0x23,0x29,0x31): mod(first=first)
for length in (0,11,13,65535): mod(length=length)
add(hdr(1,b'')); add(hdr(51,b'')); add(hdr(53,b'')); add(hdr(55,b'')); add(hdr(0,b'')); add(hdr(255,b'')); add(H('2001000400000100'))
add(hdr(52,ie(40000,b'x'*2028))); add(hdr(52,ie(40000,b'x'*2029))); add(hdr(7,ie(40000,b'x'*2029)))
# good establishments
est(fs,good); est(fs,good,seid=0xFFFFFFFFFFFFFFFF,seq=0xABCDEF); est(good,fs)
est(fs,ie(186,b'\1')); est(fs,ie(186,b'\xff'),good); est(fs,ie(186,b'\xfe'),good); est(fs,ie(186,b'\0\1'),good); est(fs,ie(186,b'\1\0'))
est(fs,cpdr(far(9),pdi(eid(3),src(0xF2)),prec(0xFFFFFFFF),pid(65535)))
est(fs,cpdr(pid(1),prec(1),pdi(src(0),ft('0100001000C0000201'),eid(4)),far(0)))
est(fs,cpdr(pid(1),prec(1),pdi(src(1),ft('0200001000'+'20010DB8'+'00'*11+'01'))))
est(fs,cpdr(pid(1),prec(1),pdi(src(1),ft('0300001000C0000201'+'20010DB8'+'00'*11+'01'+'FFFF'))))
for f in ('05','06','07','0D07','0E00','0FFF','F5','FD09','0500'): est(fs,cpdr(pid(2),prec(3),pdi(src(2),ft(f))))
for f in ('','00','04','08','09','0A','0B','0C','0D','01','0100001000','0100001000C00002','02','0300001000C0000201'+'00'*15,'30','F0'): est(fs,cpdr(pid(2),prec(3),pdi(src(2),ft(f))))
for f in ('05','0D07','0D','09','F7','','04','01','0100001000C0000201'): est(fs,good,cep(eid(1),ft(f)))
est(fs,good,cep(ft('05'),eid(255))); est(fs,good,cep(eid(1))); est(fs,good,cep(ft('05'))); est(fs,good,cep()); est(fs,good,cep(eid(1),eid(1),ft('05'))); est(fs,good,cep(ft('05'),ft('00'),eid(1))); est(fs,good,cep(ie(131,b''),ft('05')))
est(fs,good,cep(ft('04'),ie(131,b''))); est(fs,good,cep(ie(131,b''),ft('04')))
# stage 2
for b in (b'\0',b'\0\1',b'\0\1\0',fs+b'\0',fs+b'\0\1\0',fs+H('00010001'),fs+H('C0000002FF'),fs+H('00390009'),H('00000001'),H('8000FFFF')): est(b)
for inner in (b'\0',b'\0\1\0',H('0038000200'),H('00380003000100'),pid(1)+H('00020001'),pid(1)+ie(2,b'\0\0'),pid(1)+ie(2,H('00140002FF')),ie(2,b'')+ie(2,b'\0'),pid(1)+ie(2,ie(2,b'\0')),pid(1)+ie(3,b'\0'),pid(1)+pid(1)+b'\0\0\0'):
    est(fs,ie(1,inner)); mod(ie(1,inner)); mod(ie(9,inner)); dele(ie(1,inner)); est(fs,good,ie(9,inner))
for g in (127,15,130,129): 
    for inner in (b'\0',H('00830002FF'),ie(2,b'\0'),H('0015FFFF')):
        mod(ie(g,inner)); est(fs,good,ie(g,inner))
est(fs,ie(2,b'\0'),good); mod(ie(2,b'\0')); mod(ie(1,b'\0'),b'\0'); mod(ie(129,b'\0'),H('00')); mod(pid(1),H('0039FFFF'))
# stage 3: order
est(); est(good); est(fs); est(fs,fs,good); est(fs,ie(57,b''),good); est(ie(57,b''),good); est(ie(57,H('00')),good); est(ie(57,H('01')+u64(1)),good); est(ie(57,H('02')+u64(1)+b'\1\2\3'),good); est(ie(57,H('02')+u64(0)+b'\1\2\3\4'),good)
est(ie(57,H('03')+u64(1)+b'\1\2\3\4'+b'\0'*16),good); est(ie(57,H('03')+u64(1)+b'\1\2\3\4'+b'\0'*15),good); est(ie(57,H('01')+u64(9)+b'\0'*16+b'zz'),good); est(ie(57,H('FC')+u64(9)),good); est(ie(57,H('FE')+u64(9)+b'\0'*4),good); est(ie(57,H('02')+u64(1)),good); est(ie(57,H('00')+u64(0)),good)
est(fs,ie(186,b''),good); est(fs,ie(186,b'\1'),ie(186,b''),good); est(ie(186,b'\1'),ie(186,b'\0'),fs); est(ie(186,b'\1')); est(ie(186,b'\0')); est(ie(186,b'\0'),fs); est(ie(186,b''),cpdr())
est(fs,cpdr()); est(fs,cpdr(pid(1))); est(fs,cpdr(pid(1),prec(1))); est(fs,cpdr(prec(1),pdi(src(1)))); est(fs,cpdr(pid(1),pdi(src(1)))); est(fs,cpdr(pid(1),prec(1),pdi())); est(fs,cpdr(pdi(),pid(1),pid(1))); est(fs,cpdr(pdi(eid(1)),ie(56,b'')))
est(fs,cpdr(pid(1),pid(1),prec(1),pdi(src(1)))); est(fs,cpdr(pid(1),ie(56,b''),prec(1),pdi(src(1)))); est(fs,cpdr(ie(56,b'\1'),pid(1))); est(fs,cpdr(pid(1),ie(29,b''),pdi(src(1)))); est(fs,cpdr(pid(1),ie(29,b'\0\0\0'),pdi(src(1)))); est(fs,cpdr(pid(1),prec(1),pdi(src(1)),pdi()))
est(fs,cpdr(pid(1),prec(1),pdi(src(1)),ie(108,b''))); est(fs,cpdr(pid(1),prec(1),pdi(src(1)),ie(108,b'\1\2\3'))); est(fs,cpdr(pid(1),prec(1),pdi(src(1)),far(1),far(1))); est(fs,cpdr(pid(1),prec(1),pdi(src(1)),ie(108,b'\0\0\0\5\6')))
est(fs,cpdr(pid(1),prec(1),pdi(src(1),src(2)))); est(fs,cpdr(pid(1),prec(1),pdi(ie(20,b'')))); est(fs,cpdr(pid(1),prec(1),pdi(src(1),ie(131,b'')))); est(fs,cpdr(pid(1),prec(1),pdi(src(1),eid(1),eid(2)))); est(fs,cpdr(pid(1),prec(1),pdi(src(1),ft('05'),ft('')))); est(fs,cpdr(pid(1),prec(1),pdi(ft('05'),eid(1))))
est(fs,cpdr(pid(1),prec(1),pdi(src(1),ft('09'),ft('05')),pid(1))); est(fs,cpdr(pid(1),eid(1),ft(''),src(1),prec(1),pdi(src(1),pid(1),prec(1))))
est(fs,good,upd(),rem(),rep(),ie(129,b''),ie(60,b''),ie(32768,b''),ie(65535,b'abc'),ie(8,b'')); est(ie(60,b'\0'),ie(50000,good),fs,good,good)
est(fs,good,cpdr(pid(2),prec(2))); est(cpdr(pid(2)),fs); est(fs,cep(eid(1)),cpdr())
# modifications
mod(); mod(fs,ie(57,b''),ie(186,b''),ie(186,b'')); mod(upd(pid(1))); mod(upd()); mod(upd(prec(1))); mod(upd(pid(1),prec(5),far(6))); mod(upd(pid(1),ie(108,b''))); mod(upd(pid(1),ie(108,b'\1'))); mod(upd(pid(1),ie(29,b''))); mod(upd(pid(1),pdi())); mod(upd(pid(1),pdi(),pdi())); mod(upd(pid(1),pdi(ie(20,b'')))); mod(upd(pid(1),ie(108,b''),ie(108,b''))); mod(upd(pid(1),prec(1),ie(29,b'')));mod(upd(ie(56,b'\1')))
mod(upd(pdi(src(1)),pid(3),eid(1),ft('')))
mod(rem(pid(1))); mod(rem()); mod(rem(pid(1),pid(1))); mod(rem(ie(56,b''))); mod(rem(prec(1),pid(2),ie(29,b''))); mod(rep(eid(1))); mod(rep()); mod(rep(eid(1),eid(1))); mod(rep(ie(131,b''))); mod(rep(pid(1))); mod(rep(eid(9),ft('')))
mod(ie(129,b'')); mod(ie(129,b'\0'),rem(pid(1)),ie(129,b''))
mod(good,upd(pid(1)),rem(pid(2)),rep(eid(3)),cep(eid(4),ft('06'))); mod(*[rep(eid(i%256)) for i in range(225)]); mod(*[rep(eid(i%256)) for i in range(225)]+[ie(65,b'')]); mod(*[rem(pid(i)) for i in range(203)])
# FQ-CSIDs
cs=lambda h: ie(65,H(h))
for k in (est,mod,dele,sets):
    pre=(fs,good) if k is est else ()
    for h in ('','01C000020A000501','000000000002','00000000000201','213FF710050009'+'05','31000000000000','3','F0','0','01','01C000020A0005','00','0000000000','01C000020A000506','01C000020A00050F','01C000020A0005F5','02C000020A0001000201','0F'+'C000020A'+'0001'*15+'03','0F'+'C000020A'+'0001'*14+'03','11'+'20010DB8'+'00'*12+'000704','11'+'00'*18,'10'+'00'*17,'2000000000'+'01','0000000001'+'01','21'+'F423F000'+'000101','21'+'F4240000'+'000101','21F423FFFF000105','22F423FFFF0001000205','000000000006','0000000000F3'):
        if len(h)%2: h='0'+h
        k(*pre,cs(h))
    a,b_=cs('01C000020A000501'),cs('01C000020B000602')
    k(*pre,a,b_); k(*pre,a,a); k(*pre,a,cs('000000000001')); k(*pre,cs('000000000002'),b_); k(*pre,a,cs('')); k(*pre,cs(''),a); k(*pre,cs(''),cs('')); k(*pre,a,cs('31'),a); k(*pre,a,cs('02C000020A0001000201')); k(*pre,a,b_,cs('01C000020A000503'),cs('01C000020A000504'),cs('01C000020A000505'),cs('01C000020A000500')); k(*pre,cs('01C000020A000506'),cs('01C000020A000506'))
mod(cs(''),good,ie(129,b'')); mod(cs(''),ie(1,cs(''))); mod(rem(pid(1)),cs(''),upd(pid(2)))
dele(fs,good,ie(129,b'')); dele(cpdr()); dele(ie(186,b''))
# UE IP Addresses (02 (v)): values, then repeats, what comes before and after, and places that have none
ue=lambda h: ie(93,H(h))
for h in ('020A000001','10','12','00','020A','','01','22','860A000001','0200000000','02FFFFFFFF99','020A0000','94','84','08','20','40','030A000001','1099','FF'):
    est(fs,cpdr(pid(1),prec(1),pdi(src(1),ue(h)))); mod(cep(eid(1),ft('05'),ue(h)))
in_pdi=lambda *m: est(fs,cpdr(pid(1),prec(1),pdi(*m)))
in_pdi(src(1),ue('10'),ue('10')); in_pdi(src(1),ue('10'),ue('')); in_pdi(src(1),ue('01'),ue('01')); in_pdi(src(1),ue('12'),ue('10')); in_pdi(ue('020A000001'),ue('10'))
in_pdi(ue('10'),src(1)); in_pdi(ue('10')); in_pdi(ue('01'),ie(20,b'')); in_pdi(src(1),ue('01'),ft('')); in_pdi(src(1),ft(''),ue('')); in_pdi(src(1),ue(''),ft(''))
in_pdi(src(1),ft('05'),ue('10')); in_pdi(src(1),ft('0100001000C0000201'),ue('020A000001')); in_pdi(src(1),eid(3),ue('020A000002')); in_pdi(src(1),H('005D000502'))
est(fs,cpdr(pdi(src(1),ue('01')),pid(1))); est(fs,cpdr(ue(''),pid(1),prec(1),pdi(src(1))),ue('')); est(fs,ie(186,b'\1'),cpdr(pid(1),prec(1),pdi(src(1),ue('020A000001')))); est(cpdr(pid(1),prec(1),pdi(src(1),ue('01'))))
est(fs,cpdr(pid(1),prec(1),pdi(src(1),ue('10')),far(4)),cpdr(pid(2),prec(2),pdi(src(2),ue('020A000003'))),cpdr(pid(3),prec(3),pdi(src(3))),cep(eid(9),ft('07'),ue('10')))
mod(cep(ue('10'),ue('10'),eid(1),ft('05'))); mod(cep(ue('10'))); mod(cep(eid(1),ue('10'))); mod(cep(ft('05'),ue('10'))); mod(cep(ue('12'),ft(''),eid(1))); mod(cep(ue('22'),eid(7),ft('06')),rem(pid(1)))
mod(upd(pid(1),pdi(ue('')))); mod(upd(pid(1),ue(''))); mod(rem(ue(''),pid(1))); mod(rep(eid(1),ue(''))); mod(ue('')); mod(cpdr(pid(1),prec(1),pdi(src(1),ue('01'))),cs('31')); mod(ie(129,b''),cpdr(pid(1),prec(1),pdi(src(1),ue('40'))))
dele(cpdr(pid(1),prec(1),pdi(src(1),ue('')))); dele(ue(''))

# set deletions: the header, what is skipped, framing at the top level only
sets(); sets(seq=0xABCDEF); add(hdr(14,b'')); add(H('200E0003000001')); add(H('200F000400000100'))
for first in (0x00,0x40,0x24,0x2E,0x3A,0x22,0x28,0x30): sets(first=first)
for length in (0,3,5,65535): sets(length=length)
sets(ie(60,b'\0'),cs('01C000020A000501'),fs,good,ie(129,b'')); sets(ie(1,b'\1'),ie(127,b'\0\1')); sets(b'\0'); sets(H('0041000901')); sets(cs('01C000020A000501'),b'\0\0\0')
sets(ie(40000,b'x'*2036)); sets(ie(40000,b'x'*2037))

with open(sys.argv[1] + "/stdin", "wb") as f:
    f.write(b"".join(u16(len(m)) + m for m in msgs))
for m in msgs:
    print(m.hex())
