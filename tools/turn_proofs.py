#!/usr/bin/env python3
"""convert2.py ROOT CRATE.. : renames in Proof.antt (tie form) what Rattle now names otherwise, by /tmp/names/CRATE/names.json"""
import json,os,re,sys,glob
ROOT=sys.argv[1]
def norm(s): return s.replace('_','-')
IDC=r"[^\s(){}.;,@\"«»]"
ID=IDC+"+"
B=r"(?<![^\s(){}.;,@\"«»])"  # left boundary
E_=r"(?![^\s(){}.;,@\"«»])"
DECL=re.compile(r'(?:abbrev pub |abbrev |unfoldable pub |unfoldable |pub abbrev |pub )?('+ID+')')
def split_decls(text):
    """list of [kind, lines]; a declaration begins at column 0"""
    out=[];cur=None
    for l in text.split('\n'):
        if l.startswith('--') or not l.strip():
            out.append(['skip',[l]]);cur=None if not l.strip() or l.startswith('--') else cur
        elif not l[0].isspace():
            cur=['decl',[l]];out.append(cur)
        elif cur is not None and out[-1] is cur: cur[1].append(l)
        else:
            cur=['cont',[l]];out.append(cur)
    return out
def segs(sig):
    """splits a type at depth-0 arrows"""
    d=0;parts=[];cur=''
    i=0
    while i<len(sig):
        ch=sig[i]
        if ch in '({[': d+=1
        if ch in ')}]': d-=1
        if ch=='→' and d==0: parts.append(cur);cur=''
        else: cur+=ch
        i+=1
    parts.append(cur)
    return [p.strip() for p in parts]
def params(sig):
    """[(count, placetype or None)] for explicit params, and the result's place"""
    out=[]
    ps=segs(sig)
    # adjacent binders: (a : T) (b : U) → ...
    for p in ps[:-1]:
        groups=re.findall(r"\(([^()]*(?:\([^()]*\)[^()]*)*)\)|\{[^{}]*\}",p)
        if re.match(r"^[({]",p) and re.search(r"\)\s*$|\}\s*$",p) and re.search(r"^\((?:[^():]+) :",p) or re.match(r"^\{",p):
            for m in re.finditer(r"\(((?:[^()]|\((?:[^()]|\([^()]*\))*\))*)\)|\{[^{}]*\}",p):
                if m[1] is None: continue
                if ' : ' not in m[1]: continue
                ns,ty=m[1].split(' : ',1)
                q=re.fullmatch(r"tie\.("+ID+")",ty.strip())
                for _ in ns.split(): out.append(q[1] if q else None)
        else:
            q=re.fullmatch(r"\(?tie\.("+ID+r")\)?",p)
            out.append(q[1] if q else None)
    q=re.fullmatch(r"tie\.("+ID+")",ps[-1])
    return out,(q[1] if q else None)
def convert(crate,path,fn,data,log):
    text=open(path,encoding='utf-8').read()
    if 'tie.spec' not in text: log.append((path,'no tie.spec')); return
    places={norm(p[0]):p for p in data['places']}
    newplace={norm(p[0]):q for p,q in zip(data['places'],data['places_by_name'])}
    def wl(p,k):
        for _ in range(k):
            if p is None or norm(p) not in places: return None
            p=places[norm(p)][1]
        return p
    FIX=('args','ranges','requires','lifetimes','well_formed','well-formed','before','pre')
    needs=data['needs']
    m=re.search(r'tie\.spec\b((?:[^()]|\((?:[^()]|\([^()]*\))*\))*)\)?',text)
    args=re.findall(r'\((?:[^()]|\([^()]*\))*\)|'+ID,m[1])
    parts=split_decls(text)
    # signatures: merge sig over the decl
    sigof={};order=[]
    for k,(kind,ls) in enumerate(parts):
        if kind!='decl': continue
        mm=DECL.match(ls[0]); 
        if not mm or ls[0].startswith(('use ','unfolding ','module ')): continue
        t='\n'.join(ls); n=mm[1]
        after=t[mm.end():]
        if re.match(r"\s*:(\s|$)",after):
            sigof[n]=re.sub(r"\s+"," ",re.sub(r"^\s*:","",after)).strip()
    inv=[n for n,s in sigof.items() if re.match(r"tie\.(invariant|decreases)",s)]
    head=[a for a in args if a in inv]
    rest=args[len(head):]
    idx={}
    def strip(s): return re.sub(r'^overflow-','',s)
    if len(rest)==len(needs):
        for i,a in enumerate(rest): idx[a]=i
    else:
        log.append((path,'counts differ',len(rest),len(needs),rest,[n[0] for n in needs]))
        used=set();by={}
        for i,(o,n) in enumerate(needs): by.setdefault(norm(o),[]).append(i)
        for a in rest:
            s=sigof.get(a,''); q=re.match(r"tie\.Need-("+ID+")",s)
            s=norm(strip(q[1] if q else a))
            s=re.sub('^part-','slice-bounds-',s); s={'array-read-a':'element-copy-out-a','array-read-e':'element-copy-out-e'}.get(s,s)
            c=[i for i in by.get(s,[]) if i not in used]
            if c: idx[a]=c[0];used.add(c[0])
            else: log.append((path,'no need',a,s))
    results={n:params(s)[1] for n,s in sigof.items() if params(s)[1]}
    def step_at(place,s):
        p=place
        if s in FIX: return s.replace('-','_')
        if p and norm(p) in places:
            st=places[norm(p)][2]
            if st and norm(st[0])==norm(s): return st[1]
        return None
    def search_up(place,s):
        p=place
        while p and norm(p) in places:
            st=places[norm(p)][2]
            if st and norm(st[0])==norm(s): return st[1]
            p=places[norm(p)][1]
        return None
    def rewrite(body,alias):
        alias=dict(alias)
        CH=r"((?:\."+ID+r")*)"
        for _ in range(8):
            for mm in re.finditer(r"let (?P<n>"+ID+r") = (?P<r>"+ID+r")(?P<b>(?:\.before)*)\s+in"+E_,body):
                if mm['r'] in alias and mm['n'] not in alias:
                    q=wl(alias[mm['r']],mm['b'].count('before'))
                    if q is not None: alias[mm['n']]=q
            for mm in re.finditer(r"let (?P<n>"+ID+r") = \((?P<f>"+ID+r")\s[^()]*\)(?P<b>(?:\.before)*)\s+in"+E_,body):
                if mm['f'] in results and mm['n'] not in alias:
                    q=wl(results[mm['f']],mm['b'].count('before'))
                    if q is not None: alias[mm['n']]=q
            for mm in re.finditer(r"let (?P<n>"+ID+r") = (?P<f>"+ID+r") [^()\n]*?\s+in"+E_,body):
                if mm['f'] in results and mm['n'] not in alias: alias[mm['n']]=results[mm['f']]
            for mm in re.finditer(r"\((?P<n>"+ID+r") : tie\.(?P<p>"+ID+r")\)",body):
                if mm['n'] not in alias: alias[mm['n']]=mm['p']
        def fieldpath(start,chain,whole):
            fs=chain.split('.')[1:];k=0
            while k<len(fs) and fs[k]=='before': k+=1
            q=wl(start,k)
            if k==len(fs): return chain
            if q is None: log.append((path,'walk past start',whole)); return chain
            n=step_at(q,fs[k])
            if n is None:
                for nm in (fs[k],fs[k].replace('_lem',''),'fits' if fs[k]=='fits2' else fs[k],re.sub(r'(\d+)$',r'-\1',fs[k])):
                    for st in (q,start):
                        pp=st;d=0
                        while pp and norm(pp) in places:
                            s2=places[norm(pp)][2]
                            if s2 and norm(s2[0])==norm(nm): n=s2[1];break
                            pp=places[norm(pp)][1];d+=1
                        if n: break
                    if n: break
                if n:
                    dd=0;p3=start
                    while p3!=pp: p3=places[norm(p3)][1];dd+=1
                    log.append((path,'depth mended',whole,k,dd,n))
                    return '.'+'.'.join(['before']*dd+[n]+fs[k+1:])
                log.append((path,'NO STEP',whole,q,n))
                n=fs[k]
            return '.'+'.'.join(fs[:k]+[n]+fs[k+1:])
        if alias:
            rx=re.compile(B+"("+'|'.join(sorted(map(re.escape,alias),key=len,reverse=True))+r")((?:\."+ID+r")+)")
            body=rx.sub(lambda mm: mm[1]+fieldpath(alias[mm[1]],mm[2],mm[0]),body)
        body=re.sub(r"\(("+ID+r")(\s[^()]*)\)((?:\."+ID+r")+)",lambda mm: f"({mm[1]}{mm[2]})"+fieldpath(results[mm[1]],mm[3],mm[0]) if mm[1] in results else mm[0],body)
        return body
    def types(t):
        def one(mm):
            x=mm[1]
            if norm(x) in newplace: return 'tie.'+newplace[norm(x)]
            return mm[0]
        return re.sub(r"tie\.("+ID+")",one,t)
    loopname={}
    for (ls,vs) in data['loops']: loopname[norm(ls[0])]=ls[1]
    last=None
    for k,(kind,ls) in enumerate(parts):
        if kind!='decl': continue
        t='\n'.join(ls)
        if ls[0].startswith(('use ','unfolding ','module ')): continue
        mm=DECL.match(ls[0])
        if not mm: continue
        n=mm[1];after=t[mm.end():]
        if re.match(r"\s*:(\s|$)",after):
            s=sigof[n]
            if n in idx and n in sigof:
                t=re.sub(r"tie\.Need-"+ID,"tie.Need-"+needs[idx[n]][1],t,count=1)
            elif re.match(r"tie\.(invariant|decreases)-",s):
                q=re.match(r"tie\.(invariant|decreases)-("+ID+")",s)
                new=loopname.get(norm(q[2])) or (list(loopname.values())[0] if len(loopname)==1 else None)
                if not new: log.append((path,'no loop',s,loopname)); new=q[2]
                t=re.sub(r"tie\.(invariant|decreases)-"+ID,lambda z:f"tie.{z[1]}-{new}",t,count=1)
            else:
                # parameters named in the signature may be projected there
                al={}
                for z in re.finditer(r"\(((?:"+ID+r" ?)+) : tie\.("+ID+r")\)",t):
                    for nm in z[1].split(): al[nm]=z[2]
                t=rewrite(t,al)
                t=types(t)
        else:
            lhs,eq,rhs=t.partition('=')
            an=lhs.split()[1:] if not lhs.startswith(('pub','abbrev')) else []
            al={}
            if n in idx:
                if an: al[an[0]]=data['asked_at'][idx[n]][0]
            elif n in sigof:
                ps,_=params(sigof[n])
                simple=re.findall(r"\((?:[^()]|\([^()]*\))*\)|\{[^{}]*\}|"+ID,lhs)[1:]
                simple=[x for x in simple if not x.startswith('{')]
                for x,p in zip(simple,ps):
                    if p and re.fullmatch(ID,x): al[x]=p
            t=lhs+eq+types(rewrite(rhs,al))
            t=t.replace('tie.spec','tie.spec')
        parts[k][1]=t.split('\n')
    gone=[a for a in rest if a not in idx and a in sigof]
    if gone or len(rest)!=len(needs):
        keep=[];skipblock=False
        for kind,ls in parts:
            if kind=='decl':
                mm=DECL.match(ls[0])
                if mm and not ls[0].startswith(('use ','unfolding ')) and mm[1] in gone: skipblock=True; continue
                if ls[0].startswith('unfolding ') and skipblock: continue
                skipblock=False
            keep.append([kind,ls])
        parts=keep
    text='\n'.join('\n'.join(ls) for _,ls in parts)
    for g in gone: text=re.sub(r"\n *"+re.escape(g)+r"(?=[\s)])","",text)
    have={idx[a] for a in idx}
    for i,(o,nw) in enumerate(needs):
        if i not in have: log.append((path,'new need',nw))
    f=fn[-1]
    spec=[n for n in sigof if n.endswith('-spec') and 'statement' in sigof[n]]
    for sp in spec:
        text=re.sub(B+re.escape(sp)+E_,f+'_spec',text)
    text=re.sub(r"use borrow\.Author\.Needs\.\{needs\}","use borrow.Author.Rules.{rules}",text).replace('search needs','search rules')
    open(path,'w').write(text)
    return True
def main():
    log=[];done=0
    for crate in sys.argv[2:]:
        data=json.load(open(f'/tmp/names/{crate}/names.json'))
        for path in sorted(glob.glob(f'{ROOT}/crates/{crate}/proofs/**/Proof.antt',recursive=True)):
            rel=os.path.relpath(os.path.dirname(path),f'{ROOT}/crates/{crate}/proofs').split('/')
            key=f"Rattle-{crate}-proofs.{'.'.join(rel)}.Lts"
            if key not in data: log.append((path,'no names',key)); continue
            if convert(crate,path,rel,data[key],log): done+=1
    for l in log: print(*[str(x)[:400] for x in l])
    print('converted',done)
main()
