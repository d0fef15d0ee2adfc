% Tokens as the examples don't have them, for the trial of the highlighting. It is no program: 1 begins no token.
id:name_type. Γ : type. élan: id->Γ. 漢字 :Γ. x1_y : (Γ,[Γ],id\id\Γ,())->Γ.
pred  p(Γ). pred q.
p( _ ):-q;q,p(É1).% no space before
_(X_1, _y)Aβ
p(élan (a)) :- new a (exists A (a#A, a \ A = b\c\swap (a,b,A), typed(types), type1, prednew, newpred)).
?-[a|b]=[],x\
y=1 & "s" 'c' 2x ! $ { } ~ ` < > / * + - @ ^ ? :
X:-Y. type: type. a:
b :
-c.
