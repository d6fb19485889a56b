import glob,subprocess,sys
"""least_times.py DEALS TURNS PROGRAM..: deal_tables as several programs, deal by deal in turns, the least processor time of each."""
deals,turns,*bins=sys.argv[1:]
D=[l.split("\t")[0].strip() for l in open(deals) if l.startswith("N:")]
def ms(p):
    return sum(int(open(t).read().split()[0]) for t in glob.glob(f"/proc/{p.pid}/task/*/schedstat"))/1e6
P={b:subprocess.Popen([b],stdin=subprocess.PIPE,stdout=subprocess.PIPE,stderr=subprocess.DEVNULL,text=True,bufsize=1) for b in bins}
least={b:[9e9]*len(D) for b in bins}; ans={}
for t in range(int(turns)):
    for i,d in enumerate(D):
        for b in (bins if t%2==0 else bins[::-1]):
            p=P[b]; a=ms(p); p.stdin.write(d+"\n"); p.stdin.flush(); r=p.stdout.readline().split("\t"); x=ms(p)-a
            least[b][i]=min(least[b][i],x)
            if ans.setdefault(i,r[1])!=r[1]: print("differs",b,i)
base=sum(least[bins[0]])
for b in bins:
    s=sorted(least[b]); print(f"{b.split('/')[-1]:24s} {sum(s):9.1f} ms ({100*(sum(s)/base-1):+.2f} %)")
